# docs/lesson/tiled.txt without a place written by hand: tiles of four windows in local memory.
strategy = (
    top("tile-slide 4")
    >> "map-join"
    >> "fuse-map"
    >> "let-inline"
    >> inside("slide 3 1", at("0", "local-copy"))
    >> folds()
    >> lower("to-wrg", "to-lcl")
)
