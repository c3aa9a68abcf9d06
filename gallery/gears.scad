// Two wheels whose teeth meet. A bar across a whole wheel makes two of its teeth; an axle stands in each bore.
// ./pxplanes convert --size 256 256 --view 32 0 0 --depth 12 6 gallery/gears.csg
module wheel(count, radius, bore, colour) {
  color(colour) difference() {
    union() {
      cylinder(h = 5, r = radius, $fn = count);
      for (n = [1 : count / 2]) rotate(n * 360 / count) linear_extrude(5) polygon([for (s = [-1, 1]) each
        [[-s * (radius + 3.4), -s * 1.2], [-s * (radius - 1), -s * 2.3], [s * (radius - 1), -s * 2.3], [s * (radius + 3.4), -s * 1.2]]]);
    }
    translate([0, 0, -1]) cylinder(h = 7, r = bore, $fn = 8);
  }
  color([.82, .84, .88]) translate([0, 0, -5]) cylinder(h = 14, r = bore - 1.2, $fn = 8);
}
tilt = -40;
rotate(tilt) wheel(12, 15, 4.6, [.92, .60, .24]);
rotate(tilt) translate([28.4, 0, 0]) rotate(22.5) wheel(8, 10, 3.6, [.32, .62, .82]);
