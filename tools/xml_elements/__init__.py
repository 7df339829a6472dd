"""Projects in MSBuild's XML notation as the element form that msb reads (docs/FORMATS.md).

`documents` decodes a file, `reading` makes elements of it, `content` the text of a property, and
`references` mends line ends inside references. `writing` writes elements as JSON, and `sdks` puts
the Imports of an Sdk in its place. `mirrors` does so for a whole folder, whose files `trees` finds.
`surveys` tells what msb does not take, by `table` (which element may stand where), `expressions`
and `conditions` (the grammars of texts).
"""
