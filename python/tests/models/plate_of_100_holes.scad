// A plate with 100 holes of 64 sides, ten by ten.
difference() {
  cube([100, 100, 6]);
  for (x = [0 : 9], y = [0 : 9])
    translate([5 + 10 * x, 5 + 10 * y, -1]) cylinder(h = 8, r = 3.5, $fn = 64);
}
