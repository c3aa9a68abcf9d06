// Two words of blocks on a floor. Each stroke of a letter is a box.
function strokes(c) =
  c == "P" ? [[0, 0, 1, 5], [1, 4, 2, 1], [1, 2, 2, 1], [2, 3, 1, 1]] :
  c == "I" ? [[1, 0, 1, 5]] :
  c == "E" ? [[0, 0, 1, 5], [1, 0, 2, 1], [1, 2, 1.5, 1], [1, 4, 2, 1]] :
  c == "L" ? [[0, 0, 1, 5], [1, 0, 2, 1]] :
  c == "A" ? [[0, 0, 1, 5], [2, 0, 1, 5], [1, 4, 1, 1], [1, 2, 1, 1]] :
  c == "S" ? [[0, 0, 3, 1], [2, 1, 1, 1], [0, 2, 3, 1], [0, 3, 1, 1], [0, 4, 3, 1]] : [];
module box(x, y, z, size) translate([x, y, z]) cube(size);
module slant(from, to) hull() { translate([from, 0, 0]) cube([1, 2, .01]); translate([to, 0, 5]) cube([1, 2, .01]); }
module letter(c, colour) color(colour) {
  for (s = strokes(c)) box(s[0], 0, s[1], [s[2], 2, s[3]]);
  if (c == "X") { slant(0, 2); slant(2, 0); }
  if (c == "N") { box(0, 0, 0, [1, 2, 5]); box(2, 0, 0, [1, 2, 5]); hull() { box(0.6, 0, 4, [.8, 2, 1]); box(1.6, 0, 0, [.8, 2, 1]); } }
}
module word(w, colours) for (i = [0 : len(w) - 1]) translate([i * 3.75, 0, 0]) letter(w[i], colours[i]);
color([.20, .23, .32]) box(-7, -10, -1, [36, 30, 1]);
color([.27, .31, .42]) box(-.5, 5, 0, [21, 6, 5.5]);
translate([1.1, 7, 5.5]) word("PIXEL", [[.96, .42, .35], [.97, .58, .33], [.98, .75, .34], [.80, .80, .38], [.52, .78, .45]]);
translate([-.6, -2, 0]) word("PLANES", [[.33, .74, .62], [.30, .66, .80], [.36, .53, .90], [.52, .45, .88], [.70, .42, .80], [.88, .42, .62]]);
