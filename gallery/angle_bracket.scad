// An angle bracket: a foot with two bolt holes, a rounded wall with a bore and two holes, and a rib.
// ./pxplanes convert --size 256 256 --view 62 0 32 --depth 12 6 gallery/angle_bracket.csg
$fn = 18;
steel = [.46, .58, .70];
module hole(x, y) translate([x, y, -1]) cylinder(h = 8, r = 3);
color(steel) difference() {
  translate([-24, -30, 0]) cube([48, 36, 5]);
  hole(-16, -20);
  hole(16, -20);
}
color(steel) difference() {
  intersection() {
    translate([-24, 1, 5]) cube([48, 5, 37]);
    translate([0, 10, 15]) rotate([90, 0, 0]) cylinder(h = 12, r = 27, $fn = 24);
  }
  translate([0, 10, 26]) rotate([90, 0, 0]) cylinder(h = 12, r = 8);
  translate([-15, 10, 15]) rotate([90, 0, 0]) cylinder(h = 12, r = 2.6);
  translate([15, 10, 15]) rotate([90, 0, 0]) cylinder(h = 12, r = 2.6);
}
color([.93, .56, .26]) rotate([90, 0, 90]) translate([0, 0, -2]) linear_extrude(4) polygon([[-26, 5], [1, 5], [1, 17]]);
