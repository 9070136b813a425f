 call away
