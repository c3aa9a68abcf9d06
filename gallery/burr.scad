// The six-piece burr: three pairs of bars through one another, and the key drawn out.
module bar(size, colour) color(colour) cube(size, center = true);
translate([0, -1, 0]) bar([8, 2, 2], [.90, .36, .32]);
translate([0, 1, 0]) bar([8, 2, 2], [.95, .60, .28]);
translate([0, 0, -1]) bar([2, 8, 2], [.95, .82, .36]);
translate([0, 0, 1]) bar([2, 8, 2], [.45, .72, .40]);
translate([-1, 0, 0]) bar([2, 2, 8], [.30, .58, .82]);
translate([1, 0, 7]) color([.60, .42, .78]) difference() {
  cube([2, 2, 8], center = true);
  translate([-1, 0, 0]) cube([2.02, 3, 4], center = true);
  translate([0, 1, 0]) cube([3, 2, 2], center = true);
}
