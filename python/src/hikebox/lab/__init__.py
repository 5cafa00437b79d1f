"""`hikebox lab`: a page on this machine on which you try policies and storms."""
