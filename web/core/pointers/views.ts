// What interfaces may import from this layer besides tasks: lists of tables that they open, show, or save.

export { baseText, isTableList, pointerList, tablesOfList, type ListedTable } from './tables.js';
