# Colours, classes and the legend.

# The colours of both pages, and the classes of the epochs' colours.
function print_colours(    i) {
  print ":root{color-scheme:light dark;--bg:#fff;--fg:#1b1f24;--mu:#5c6675;--ln:#cdd2da;--ok:#14713a;--bad:#b3202a;--dn:#7d8591;" \
    "--dk:#2b3038;--k9:#6f7988" palette("#2563eb #c2570c #8b34d6 #0e8088 #c02672 #8a5a1e #4a45c9 #66750f") "}"
  print "@media(prefers-color-scheme:dark){:root{--bg:#14171c;--fg:#e6e9ee;--mu:#98a2b0;--ln:#3a414c;--ok:#5fd38d;--bad:#ff7b7b;" \
    "--dn:#8b93a0;--dk:#d5dae2;--k9:#98a2b0" palette("#7aa7ff #ff9d5c #c99bff #4fd0d8 #ff86bd #d9a866 #a5a1ff #c3d05a") "}}"
  for (i = 0; i <= 9; i++) if (i != 8) printf ".e%d{--c:var(--k%d)}", i, i
  print ""
}

function print_style() {
  print_colours()
  print "text{font:12px system-ui,sans-serif;fill:var(--fg)}.pt,.hn,.lost,.lo,.an{text-anchor:middle}.pt{font-size:11px}"
  print ".hn{font-weight:700;font-size:13px}.an{font-weight:700}.lost,.lo{paint-order:stroke;stroke:var(--bg);stroke-width:3px}"
  print ".l1{font-weight:600}.l2,.lo{fill:var(--mu);font-size:11px}.gh{font-weight:700;font-size:13px}"
  print ".op{font-style:italic}.gap{fill:var(--bad);font-weight:600}.ln{stroke:var(--ln);stroke-width:2}"
  print ".al{stroke:var(--ln);stroke-width:1;stroke-dasharray:3 3}.down{fill:var(--dn);fill-opacity:.18}.hit{fill:none;pointer-events:all}"
  print ".bus,.ar{stroke:var(--c,var(--k9));stroke-width:1.6;fill:none}.lt{stroke-dasharray:5 4}.dot,.hd{fill:var(--c,var(--k9))}"
  if (has_names) print ".im{fill:var(--ok);fill-opacity:.35;stroke:var(--ok);stroke-width:1.5}.sr{font:11px ui-monospace,monospace}"
  print ".nd{fill:var(--bg);stroke:var(--k9)}.cutl{stroke:var(--bad);stroke-dasharray:2 2}.x{stroke:var(--bad);stroke-width:2;fill:none}"
  print ".lost{fill:var(--bad);font-size:11px}.pl{fill:var(--bg);stroke:var(--c,var(--k9));stroke-width:1.3}"
  print "g[class^=e]>.pl{fill:color-mix(in srgb,var(--c) 15%,var(--bg))}.mu{stroke-dasharray:3 2}.best{stroke-width:2.6}"
  print ".kbad,.kstop{--c:var(--bad)}.kbad .pt,.kstop .pt{fill:var(--bad)}.kdown{--c:var(--dn)}.kdown .pt{fill:var(--mu)}"
  print ".kidle{--c:var(--dn)}.karm{--c:var(--bad)}.krise{--c:var(--ok)}.krise .pt{fill:var(--ok)}"
  print ".kkill .pl{fill:var(--dk);stroke:var(--dk)}.kkill .pt{fill:var(--bg);font-weight:700}"
  print ".gf{fill:var(--c);fill-opacity:.06}.gs{fill:var(--c)}.ra,.rt{fill:var(--ok);font-weight:600}.rb{fill:var(--bad);font-weight:600}"
  print ".ri{fill:var(--mu)}.sf{fill:var(--c);fill-opacity:.42;stroke:var(--c);stroke-width:2}"
  print ".sa{fill:var(--c);fill-opacity:.2;stroke:var(--c);stroke-dasharray:6 2}"
  print ".sp{fill:var(--c);fill-opacity:.1;stroke:var(--c);stroke-dasharray:2 2}"
}

function palette(colours,    each, i, text) {
  split(colours, each, " ")
  for (i = 1; i <= 8; i++) text = text ";--k" (i - 1) ":" each[i]
  return text
}

function legend(    top) {
  draw(text_at("gh", 16, y + 14, "Legend"))
  top = y + 26
  legend_epochs(16, top)
  top += epoch_count ? 26 : 2
  legend_marks(top)
  legend_bars(top + 26)
  y = top + 50
}

function plain_text(x, top, text) { return "<text x='" x "' y='" top "'>" text "</text>" }

function legend_epochs(x, top,    k) {
  for (k = 1; k <= epoch_count && k <= 16; k++) {
    draw("<g class='" epoch_class(epoch_order[k]) "'><rect class='gs' x='" x "' y='" (top - 4) "' width='12' height='12' rx='2'/>" \
      plain_text(x + 17, top + 6, "epoch " epoch_order[k]) "</g>")
    x += 34 + 7 * (6 + length(epoch_order[k]))
  }
  if (epoch_count > 16) draw(plain_text(x, top + 6, "… " epoch_count " epochs, their colours repeat after 8"))
}

function swatch(group, class, x, top, wide, round, text) {
  return "<g class='" group "'><rect class='" class "' x='" x "' y='" (top - 9) "' width='" wide "' height='18'" \
    (round ? " rx='9'" : "") "/>" (text == "" ? "" : text_at("pt", x + wide / 2, top + 4, text)) "</g>"
}

function legend_marks(top) {
  draw(swatch("e0", "pl", 16, top, 60, 1, "✓ ok") plain_text(82, top + 4, "answered"))
  draw(swatch("kbad", "pl", 166, top, 104, 1, "✕ 4 OldSerial 3") plain_text(276, top + 4, "refused: number, name, field"))
  draw("<g><path class='ar cutl' d='M466 " (top - 9) "v8'/><path class='x' d='M462 " (top - 3) "l8 6m0 -6l-8 6'/></g>" \
    plain_text(478, top + 4, "call lost on the way"))
  draw(swatch("e0", "pl mu", 604, top, 44, 1, "") plain_text(654, top + 4, "done, but the reply was lost"))
  draw("<rect class='down' x='826' y='" (top - 9) "' width='40' height='18'/>" plain_text(872, top + 4, "node is down"))
}

function legend_bars(top) {
  draw(swatch("e0", "sf", 16, top, 40, 0, "") plain_text(62, top + 4, "final"))
  draw(swatch("e0", "sa", 106, top, 40, 0, "") plain_text(152, top + 4, "accepted in a recovery"))
  draw(swatch("e0", "sp", 296, top, 40, 0, "") plain_text(342, top + 4, "in progress"))
  draw("<path class='bus lt' d='M426 " top "h40'/>" plain_text(472, top + 4, "late copy"))
  if (has_names) draw("<rect class='im' x='906' y='" (top - 6) "' width='10' height='12' rx='1'/>" plain_text(922, top + 4, "image saved"))
  draw("<text class='lo' style='text-anchor:start' x='546' y='" (top + 4) \
    "'>left out: not called since it missed something in this segment</text>")
}
