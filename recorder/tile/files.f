tile_pkg.sv
tile_core.sv
tile_hub.sv
tile.sv
bind.sv
