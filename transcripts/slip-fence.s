fence wr, w
