"""Answers as tables, texts, workbooks and pages."""
