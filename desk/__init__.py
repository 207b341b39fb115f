"""The office's desk: parts of farm books come in, and nothing is lost. It decides no figure: proved code reads each part."""
