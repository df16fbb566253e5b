"""Of demo/office, fleet and morning: houses and their users, a truth of what was consumed, and pages compared with it."""
