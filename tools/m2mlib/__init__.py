"""The front end of the settlement: sheets and lists as text, and the proved library's answers in words."""
