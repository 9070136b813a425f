j away
foo x1
