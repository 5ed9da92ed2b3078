"""Words in the language of FreeCAD's window, as far as Resources/translations has them; what `draft` and recon say is in English."""
import FreeCAD


def translate(context: str, text: str, *values: object) -> str:
    """A text in that language, with its values put in."""
    told = str(FreeCAD.Qt.translate(context, text))
    return told.format(*values) if values else told
