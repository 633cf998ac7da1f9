"""The desk of Katchidul: the clerk's command over the proved programs.

The programs of crates/ work out every time and every cell. The modules here make orders for them, split them by a town's clock, and show
what they print. They need Python 3.9 and its standard library alone."""
