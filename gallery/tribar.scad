// The impossible triangle, which is there from one side: three bars at right angles, and the free end of one is cut along the view.
// ./pxplanes convert --size 256 256 --view 54.7356103 0 -45 --scale 35.3 --depth 12 6 gallery/tribar.csg
side = 6;
color([.96, .73, .30]) {
  difference() {
    cube([1, 1, side + 1]);
    polyhedron([for (t = [-3, 3], p = [[0, 0, 0], [0, 0, 3], [0, -3, 0]]) p + [t, t, side - t]],
      [[0, 1, 2], [3, 5, 4], [0, 3, 4, 1], [1, 4, 5, 2], [2, 5, 3, 0]]);
  }
  cube([side + 1, 1, 1]);
  translate([side, 0, 0]) cube([1, side + 1, 1]);
}
