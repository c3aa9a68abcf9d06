// A castle: four towers with pointed roofs, walls between them, a gate, and a keep.
// ./pxplanes convert --size 256 256 --view 58 0 28 --depth 12 6 gallery/castle.csg
stone = [.76, .72, .65];
module tower(x, y) translate([x, y, 0]) {
  color([.84, .80, .72]) cylinder(h = 20, r = 5, $fn = 8);
  color([.78, .28, .24]) translate([0, 0, 20]) cylinder(h = 13, r1 = 6.4, r2 = 0, $fn = 8);
}
color([.46, .64, .36]) translate([-25, -25, -2]) cube([50, 50, 2]);
for (x = [-17, 17], y = [-17, 17]) tower(x, y);
color(stone) difference() {
  translate([-17, -19, 0]) cube([34, 4, 13]);
  translate([-4, -20, -1]) cube([8, 6, 10]);
}
color(stone) {
  translate([-19, -17, 0]) cube([4, 34, 13]);
  translate([15, -17, 0]) cube([4, 34, 13]);
  translate([-17, 15, 0]) cube([34, 4, 13]);
  for (n = [-1.5 : 1.5]) translate([n * 6 - 1.5, -19, 13]) cube([3, 4, 2.4]);
}
color([.90, .86, .78]) translate([-7, -5, 0]) cube([14, 14, 26]);
color([.30, .40, .66]) translate([0, 2, 26]) rotate(45) cylinder(h = 14, r1 = 12, r2 = 0, $fn = 4);
