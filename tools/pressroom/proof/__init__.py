"""What plates print: pictures, a proof for the browser, and ink keys."""
