demo_master.sv
demo_lite_master.sv
demo_interconnect.sv
demo.sv
bind.sv
