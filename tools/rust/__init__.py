"""The comparison of `replay` with the Rust's own functions, which are taken from a folder of ixy.rs's source; rustc must be installed.

The shims rings.rs and start_ups.rs are what stands around those functions: they are no programs by themselves. Of the other folders this one imports
only model/.
"""
