-- The language server, for each buffer of the notation.
require('ringcheck').attach()
