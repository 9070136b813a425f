j away
