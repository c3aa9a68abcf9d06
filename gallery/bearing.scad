// A bearing bracket: a foot with two bolt holes, a wall with a round boss and its bore, and a rib.
$fn = 20;
module hole(x, y) translate([x, y, -1]) cylinder(h = 8, r = 3);
color([0.36, 0.55, 0.74]) difference() {
  translate([-26, -18, 0]) cube([52, 36, 6]);
  hole(-18, -9);
  hole(18, -9);
}
color([0.36, 0.55, 0.74]) difference() {
  translate([-13, 8, 6]) cube([26, 8, 30]);
  translate([0, 20, 36]) rotate([90, 0, 0]) cylinder(h = 20, r = 8);
}
color([0.85, 0.62, 0.28]) difference() {
  translate([0, 19, 36]) rotate([90, 0, 0]) cylinder(h = 14, r = 13);
  translate([0, 20, 36]) rotate([90, 0, 0]) cylinder(h = 20, r = 8);
}
color([0.75, 0.30, 0.26]) rotate([90, 0, 90]) translate([0, 0, -3]) linear_extrude(6) polygon([[-14, 6], [8, 6], [8, 22]]);
