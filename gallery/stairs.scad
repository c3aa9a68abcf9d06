// A winding stair: sixteen wedges round a post, each higher than the one before by its own height.
// ./pxplanes convert --size 256 256 --eye 40,-62,54 --at 0,0,15 --fov 37 --depth 15 6 gallery/stairs.csg
steps = 16;
half = 14;
function hue(t) = [.5 + .42 * cos(t), .52 + .36 * cos(t - 125), .58 + .36 * cos(t - 235)];
color([.33, .35, .44]) translate([0, 0, -2]) cylinder(h = 2, r = 20, $fn = 24);
color([.90, .87, .80]) cylinder(h = steps * 2 + 5, r = 2.2, $fn = 12);
color([.96, .80, .40]) translate([0, 0, steps * 2 + 5]) cylinder(h = 3, r1 = 3, r2 = .6, $fn = 12);
for (n = [0 : steps - 1]) color(hue(n * 20)) rotate(n * 24 - 170) translate([0, 0, n * 2])
  linear_extrude(2) polygon([[0, 0], [14 * cos(half), -14 * sin(half)], [14 * cos(half), 14 * sin(half)]]);
