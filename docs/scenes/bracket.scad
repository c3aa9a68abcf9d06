// A bracket: a foot with two holes, a wall with a window, and a rib between the two.
$fn = 8;
color("SteelBlue") difference() {
  union() {
    cube([40, 30, 5]);
    translate([0, 25, 0]) cube([40, 5, 30]);
  }
  translate([8, 11, -1]) cylinder(h = 7, r = 4);
  translate([32, 11, -1]) cylinder(h = 7, r = 4);
  translate([6, 24, 14]) cube([9, 7, 9]);
}
color("Tomato") difference() {
  translate([18, 8, 5]) cube([4, 17, 20]);
  translate([17, 8, 5]) rotate([50, 0, 0]) cube([6, 40, 40]);
}
color("Gold") translate([20, 14, 14]) sphere(r = 6, $fn = 10);
