"""Runs programs on streams of records, and compares their lines with the stored ones or the model's. Of the other folders it imports only model/."""
