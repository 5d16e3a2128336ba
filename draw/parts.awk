# Small pieces of a picture, and where lanes stand.

function draw(shape) { if (!is_hidden) drawn[++drawn_count] = shape }

function text_at(class, x, top, text) { return "<text class='" class "' x='" x "' y='" top "'>" text "</text>" }

# A text that has to fit into so many points: a longer one is drawn narrower, down to two thirds, and only then cut. A character of
# the bold classes is taken for 7.3 points, of others for 6.
function fitting(class, x, top, text, room,    each, wide) {
  each = class ~ /^(l1|gh|an|op)$/ ? 7.3 : 6
  text = shorten(text, int(room * 1.5 / each))
  wide = width(text) * each
  return "<text class='" class "' x='" x "' y='" top "'" \
    (wide > room ? " textLength='" room "' lengthAdjust='spacingAndGlyphs'" : "") ">" escape(text) "</text>"
}

# A mark: shapes that are one thing to a reader, and in whole what they tell. To a screen reader it is an image of that name; the
# page's script leads to it by touch and by keys.
function mark_of(class, shapes, tip) {
  return "<g" (class == "" ? "" : " class='" class "'") " role='img'>" shapes "<title>" escape(tip) "</title></g>"
}

function dot(class, x, top, radius) { return "<circle class='" class "' cx='" x "' cy='" top "' r='" radius "'/>" }

function lane_center(i) { return lanes_left + (i - 0.5) * lane_width }

function actor_center(a) { return actors_left + (a - 0.5) * actor_width }

# The class of an epoch's colour; that of no epoch is e9.
function epoch_class(e) { return e == "" || !(e in epoch_rank) ? "e9" : "e" (epoch_rank[e] % 8) }

# Ranks all epochs that the report names.
function rank_epochs(    e, k) {
  for (e in epochs) {
    if (e == "") continue
    for (k = epoch_count++; k >= 1 && compare(epoch_order[k], e) > 0; k--) epoch_order[k + 1] = epoch_order[k]
    epoch_order[k + 1] = e
  }
  for (k = 1; k <= epoch_count; k++) epoch_rank[epoch_order[k]] = k - 1
}

function place_lanes(    a, longest) {
  drawn_writers = actor_count - ("ops" in actor_number)
  lane_width = nodes > 5 ? 134 : 146
  for (a = 1; a <= actor_count; a++) if (length(actor_name[a]) > longest) longest = length(actor_name[a])
  actor_width = longest <= 5 ? 40 : longest <= 9 ? 8 * longest : 72
  actors_left = 262
  lanes_left = actors_left + drawn_writers * actor_width + 10
  results_left = lanes_left + nodes * lane_width
  results_width = 210
}
