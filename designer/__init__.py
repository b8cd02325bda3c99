"""The designer's tools: agreement files made from sources, shown as sources, and explained. None of this is proved."""
