"""The program as scripts run it on registers in files."""
