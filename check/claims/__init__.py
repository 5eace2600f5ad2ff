"""What documents say, compared with what there is: check/documents asks each of these modules."""
