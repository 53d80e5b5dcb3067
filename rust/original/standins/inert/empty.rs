// Stand-in for a module that the files at hand declare and do not use.
