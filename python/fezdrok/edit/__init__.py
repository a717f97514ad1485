"""The editor: a picture that is changed on a page of the browser, by one tab or by several."""
