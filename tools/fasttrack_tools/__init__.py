"""What the tools beside this package share: reading reports and journals, replaying, and drawing."""
