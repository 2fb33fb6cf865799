"""What came of a campaign, for people and other tools."""
