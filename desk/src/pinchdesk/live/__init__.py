"""The live desk: `pinchdesk open` serves one page on this machine alone, on which a network is made by hand."""
