// A bar with 100 holes of 64 sides in a row.
difference() {
  cube([600, 10, 10]);
  for (x = [0 : 99])
    translate([3 + 6 * x, 5, -1]) cylinder(h = 12, r = 2.5, $fn = 64);
}
