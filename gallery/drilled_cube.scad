// A cube with round edges, drilled along its axes and cut at a corner, before a wall with a window.
$fn = 20;

difference() {
  intersection() {
    color([0.71, 0.75, 0.82]) cube(20, center = true);
    color([0.80, 0.76, 0.60]) sphere(r = 13.5, $fn = 10);
  }
  color([0.82, 0.36, 0.28]) rotate([0, 90, 0]) cylinder(h = 40, r = 6, center = true);
  color([0.82, 0.52, 0.28]) rotate([90, 0, 0]) cylinder(h = 40, r = 6, center = true);
  color([0.82, 0.68, 0.28]) cylinder(h = 40, r = 6, center = true);
  color([0.47, 0.67, 0.36]) translate([2, -30, 2]) cube([28, 28, 28]);
}
difference() {
  color([0.36, 0.37, 0.45]) translate([-90, 30, -90]) cube([180, 4, 150]);
  color([0.22, 0.26, 0.62]) translate([-28, 29, -22]) cube([20, 6, 22]);
}
