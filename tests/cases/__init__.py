"""What the programs answer: the cases of cases/, random reports and audits, refused memory."""
