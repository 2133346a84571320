import java.util.ArrayList;
import java.util.Arrays;
import java.util.Comparator;
import java.util.List;

/** Joins intervals that overlap. */
public class Main {
    public static void main(String[] args) {
        int[][] intervals = {{8, 10}, {1, 3}, {2, 6}, {15, 18}, {17, 20}, {6, 7}};
        Arrays.sort(intervals, new Comparator<int[]>() {
            public int compare(int[] one, int[] other) {
                return one[0] - other[0];
            }
        });
        List<int[]> joined = new ArrayList<int[]>();
        for (int[] each : intervals) {
            int[] last = joined.isEmpty() ? null : joined.get(joined.size() - 1);
            if (last == null || last[1] < each[0]) {
                joined.add(new int[] {each[0], each[1]});
            } else {
                last[1] = Math.max(last[1], each[1]);
            }
        }
        for (int[] each : joined) {
            System.out.println(Arrays.toString(each));
        }
    }
}
