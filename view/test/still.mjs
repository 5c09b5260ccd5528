/* ======== For a screenshot: all is read before the page counts as loaded ======== */
performance.now = () => 0;
