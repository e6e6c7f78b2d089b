# Three doesn't divide the number of windows, a multiple of four.
strategy = top("tile-slide 3") >> everywhere("map-join", "fuse-map")
