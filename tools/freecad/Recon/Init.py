"""Nothing of this addon is needed without FreeCAD's window."""
