 lla t0, value
