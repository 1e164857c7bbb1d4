"""What page/try tries the page with: two browsers without a window, and checks by subject."""
