# A manifest of this repository with the real crates in place of the stand-ins, in the
# versions that are at hand. Of their features these are the ones that gix-refspec's own
# manifest asks for. The oracle is told that the crates are real.
s|^bstr = { path = "[^"]*standins/.*|bstr = { version = "*", default-features = false, features = ["std"] }|
s|^gix-error = { path = "[^"]*standins/.*|gix-error = { version = "*", features = ["bstr"] }|
s|^\([a-z-]*\) = { path = "[^"]*standins/.*|\1 = "*"|
s|^real-crates = \[\]$|default = ["real-crates"]\n&|
