// A pawn, turned: a foot of two rings, a body, a collar and a head.
$fn = 24;
color([.80, .62, .38]) {
  cylinder(h = 3, r = 12);
  translate([0, 0, 3]) cylinder(h = 3, r1 = 11, r2 = 8.5);
  translate([0, 0, 6]) cylinder(h = 5, r1 = 7.5, r2 = 5.2);
  translate([0, 0, 11]) cylinder(h = 12, r1 = 5.2, r2 = 3.6);
  translate([0, 0, 23]) cylinder(h = 2, r1 = 7.5, r2 = 7.5);
  translate([0, 0, 25]) cylinder(h = 2, r1 = 5.5, r2 = 4);
  translate([0, 0, 31]) sphere(r = 6.4, $fn = 16);
}
color([.86, .84, .78]) for (x = [-2 : 2], y = [-2 : 2]) if ((x + y) % 2 == 0 && x - y < 4)
  translate([x * 26 - 13, y * 26 - 13, -2]) cube([26, 26, 2]);
color([.30, .34, .42]) translate([-65, -65, -3]) cube([130, 130, 3]);
