// The page begins: it reads its data, and shows the step that the address names.

const data = JSON.parse($('data').textContent)
if (data.live) {
  startLive(data)
} else {
  const run = new Run(data)
  new Controls(run, new View(run))
}
