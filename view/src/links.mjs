/* ======== Links: what stands behind `#` in the page's address ======== */
export const Links = {
  /** To a structure, counted from 0 at its node. */
  structure: (name, index = 0) => `#${encodeURIComponent(name)}/${index}`,
  /** To what a search finds. */
  search: query => `#?${encodeURIComponent(query)}`,
  /** What a link leads to: a query, or a node and an index; null where it says nothing. */
  read(hash) {
    try {
      if (hash.startsWith("#?")) return { query: decodeURIComponent(hash.slice(2)) };
      const found = /^#([^/]+)(?:\/(\d+))?$/.exec(hash);
      return found && { node: decodeURIComponent(found[1]), index: Number(found[2] ?? 0) };
    } catch (fault) {
      if (fault instanceof URIError) return null;
      throw fault;
    }
  },
};
