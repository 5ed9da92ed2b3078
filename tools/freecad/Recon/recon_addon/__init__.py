"""The addon's modules: `commands` are what is clicked, `panel` is what is seen, `child` runs the process that asks, `scene` shows solids,
`page_views` changes a page, and `asked` is that process, which needs no window. What they stand on is the folder of `draft`'s modules."""
import pathlib

FOLDER = pathlib.Path(__file__).resolve().parent
RESOURCES = FOLDER.parent / "Resources"
