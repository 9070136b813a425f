cbo.clean a1
