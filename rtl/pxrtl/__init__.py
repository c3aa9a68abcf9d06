"""The command `rtl/rtl`: checks, proves, draws and measures the machine in Verilog."""
