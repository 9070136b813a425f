fence w, w
