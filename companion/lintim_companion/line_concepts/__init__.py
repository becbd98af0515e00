"""Line concepts of least cost by HiGHS, and trees of regions which prove that none costs less."""
